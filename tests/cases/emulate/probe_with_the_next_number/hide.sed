/^(probe|unreached) /!d
