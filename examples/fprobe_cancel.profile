# fprobe p hits 2 missed 0
end
