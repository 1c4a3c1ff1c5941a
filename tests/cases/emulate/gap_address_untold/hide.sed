/^(emulate|router| held|settled|gap)/!d
