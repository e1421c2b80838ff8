"""A hub of the network on this machine, for scripts: what comes to it (`traffic`), its directory (`directory`), its neighbours at
addresses of their own (`lines`) and as the judge sees them (`neighbours`), the built switch that is started, killed and taken over
(`station`), what must come of it, told by dicts (`reference`), what it took (`measures`), and all of them together (`run`). Nothing
listens anywhere but on addresses of this machine."""
