# user pr
vfs_read 1 4
end
