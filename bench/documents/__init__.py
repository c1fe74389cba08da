"""Programs that hold the documents to the code and to the built program."""
