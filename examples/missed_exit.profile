# fprobe p hits 2 missed 1
end
