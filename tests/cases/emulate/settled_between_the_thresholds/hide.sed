/^(router| link|settled|gap)/!d
