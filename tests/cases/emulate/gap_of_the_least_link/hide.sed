/^(settled|gap)/!d
