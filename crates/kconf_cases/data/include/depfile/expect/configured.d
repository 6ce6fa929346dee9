.config: \
 ./Kconfig \
 board \
 inc/a.config \
 inc/b.config

./Kconfig:

board:

inc/a.config:

inc/b.config:
