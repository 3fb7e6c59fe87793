"""What stands around the proved program for the people who use it. Nothing here decides."""
