build/.config: \
 tree/Kconfig \
 old \
 x.cfg

tree/Kconfig:

old:

x.cfg:
