/^emulate/!d
