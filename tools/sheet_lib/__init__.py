"""What tools/sheet and ./waikurpeho share: load files, their text form, findings in words, pictures."""
