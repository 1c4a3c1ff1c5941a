s/^(run end [0-9]+ turns )[0-9]+/\1T/
