"""The parts of the replay script: functions that put calls into a transcript. A part's docstring is its headline in the script."""
