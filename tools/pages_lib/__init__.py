"""What tools/check_pages looks for in the pages."""
