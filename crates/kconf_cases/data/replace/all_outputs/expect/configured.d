.config: \
 ./Kconfig \
 x.cfg

./Kconfig:

x.cfg:
