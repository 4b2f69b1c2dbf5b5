"""What compares slapkit with OpenLDAP's slapd and its tools, outside the gate."""
