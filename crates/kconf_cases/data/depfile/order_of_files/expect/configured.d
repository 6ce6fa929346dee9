.config: \
 ./Kconfig \
 ./b \
 ./a\ b \
 ./c\# \
 x.cfg

./Kconfig:

./b:

./a\ b:

./c\#:

x.cfg:
