/^(emulate|router| link| held|settled|gap)/!d
