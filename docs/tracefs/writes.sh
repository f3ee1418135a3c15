cd /sys/kernel/tracing
echo 'vfs_* *:mod:ext4' > set_ftrace_filter
echo '!*_write' >> set_ftrace_filter
echo 'ext4_error:traceoff:1' >> set_ftrace_filter
echo vfs_read > set_graph_function
echo function > current_tracer
./workload
cat trace
echo nop > current_tracer
