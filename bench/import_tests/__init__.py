"""What bench/import_test needs: backups, expectations, and the reading of both."""
