/^(router| link| flooding|settled|gap)/!d
