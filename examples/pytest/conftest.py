pytest_plugins = ["monkeydb_pytest"]
