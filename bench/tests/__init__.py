"""Programs that try the built program as its users, strangers and accidents would. Each ends with status 1 where
something isn't as it is to be."""
