"""The server for editors: the texts that an editor holds, and the process that checks them."""
