# fprobe entry hits 2 missed 0
# fprobe both hits 2 missed 0
end
