"""What exsm's tools are made of; `exsm.client` is the module for programs of one's own."""
