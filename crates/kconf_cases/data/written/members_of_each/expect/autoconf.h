#
# Automatically generated file; DO NOT EDIT.
# Main menu
#
# CONFIG_USB is not set
CONFIG_CONSOLE_SERIAL=y
