/^(settled|gap|probe|unreached) /!d
