T=/sys/kernel/tracing
add() { for name in $2; do echo $name >> $T/$1; done; }
add set_ftrace_filter 'vfs_read vfs_write ext4_read'
add set_ftrace_notrace vfs_write
if grep -q function_graph $T/available_tracers; then tracer=function_graph; else tracer=function; fi
echo $tracer > $T/current_tracer
sleep 1
echo nop > $T/current_tracer
