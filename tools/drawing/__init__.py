"""Draws what a run printed. No part of what is proved."""
