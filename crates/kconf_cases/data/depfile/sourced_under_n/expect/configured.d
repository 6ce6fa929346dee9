.config: \
 ./Kconfig \
 ./a

./Kconfig:

./a:
