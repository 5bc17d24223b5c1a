"""What stands before and behind the proved program: readers and writers of its texts, and what people see of them."""
