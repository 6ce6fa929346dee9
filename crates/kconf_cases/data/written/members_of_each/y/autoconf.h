# CONFIG_USB is not set
