"""What a program outside the library can't do: make a controller that no call gave, or change one."""
