/^(router| held|settled|gap)/!d
