from rtdvs.cli.main import MODULE, entry

entry(MODULE)
