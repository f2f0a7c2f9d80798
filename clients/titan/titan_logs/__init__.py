"""Reads the logs of Eclipse Titan: which verdicts depended on luck, and whether one legal history holds all that they show."""
