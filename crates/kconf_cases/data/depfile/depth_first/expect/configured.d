.config: \
 ./Kconfig \
 ./b \
 ./d/c \
 ./c \
 ./a

./Kconfig:

./b:

./d/c:

./c:

./a:
