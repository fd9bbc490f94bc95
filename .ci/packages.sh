# Read by .ci/run and bench/run: installs from Debian what is missing.

updated=

# Installs a Debian package.
install_package() {
  echo "installing $1"
  if [ -z "$updated" ]; then
    apt-get update -qq
    updated=yes
  fi
  DEBIAN_FRONTEND=noninteractive apt-get install -y -qq --no-install-recommends "$1" < /dev/null > /dev/null
}

# The arguments: a command, and the package that has it.
need_command() {
  command -v "$1" > /dev/null || install_package "$2"
}

# The arguments: a file that the package holds (a pattern will do), and the package.
need_file() {
  compgen -G "$1" > /dev/null || install_package "$2"
}
