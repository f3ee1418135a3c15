trace-cmd record -p function_graph -l 'ext4_*' -n ext4_error -P 20 -e sched_switch
