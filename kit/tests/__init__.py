"""The tests of the kit, over stations that are right and stations that are wrong in one way."""
