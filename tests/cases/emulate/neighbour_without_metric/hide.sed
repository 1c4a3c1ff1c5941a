/^emulate/d
/^router [yz]/,/^settled/{
/^settled/!d
}
