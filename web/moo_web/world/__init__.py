"""The world that moo serves: requests to moo, the public facts of its objects, and what one person may know of them."""
