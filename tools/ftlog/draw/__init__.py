"""Pictures and traces of logs."""
