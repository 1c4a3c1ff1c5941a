/^sent [0-9]+ [a-z] w0 0001f3/!d
s/^(sent [0-9]+ [a-z]) w0 0001f3.{4}(.{8})(..)(..)(....).*$/\1 originator \2 limit \3 count \4 sequence \5/
