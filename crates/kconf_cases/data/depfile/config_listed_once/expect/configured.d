.config: \
 ./Kconfig \
 x.cfg \
 y.cfg

./Kconfig:

x.cfg:

y.cfg:
