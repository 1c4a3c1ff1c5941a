/^sent (838860|839680) s w0 0001f3/!d
s/^(sent [0-9]+) s w0 0001f3.{4}.{8}.{4}(....).*$/\1 sequence \2/
/(838860 sequence fff[ef]|839680 sequence 000[01])$/!d
