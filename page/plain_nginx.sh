#!/bin/sh
# Writes a whole nginx configuration for this machine alone, without TLS and passwords, from page/nginx.conf.
# usage: sh plain_nginx.sh PORT OFFICE_PORT FOLDER OFFICE_JSON    FOLDER takes nginx's own files
[ $# = 4 ] || { echo "usage: sh plain_nginx.sh PORT OFFICE_PORT FOLDER OFFICE_JSON" >&2; exit 2; }
page=$(cd "$(dirname "$0")" && pwd)
# Started by root, nginx would read the folders as another user, who may not.
[ "$(id -u)" != 0 ] || echo "user root;"
cat <<TEXT
worker_processes 2;
pid $3/nginx.pid;
error_log $3/error.log;
events { worker_connections 512; }
http {
client_body_temp_path $3/body;
proxy_temp_path $3/proxy;
fastcgi_temp_path $3/fastcgi;
uwsgi_temp_path $3/uwsgi;
scgi_temp_path $3/scgi;
TEXT
sed -e '/^ *ssl_/d' -e '/^ *auth_basic/d' \
  -e "s/listen 443 ssl default_server;/listen 127.0.0.1:$1 default_server; return 444;/" -e "s/listen 443 ssl;/listen 127.0.0.1:$1;/" \
  -e 's/server_name desk.example.net;/server_name 127.0.0.1 localhost;/' -e "s/server 127.0.0.1:8470/server 127.0.0.1:$2/" \
  -e "s#root /usr/local/share/warn_main/page;#root $page;#" -e "s#/var/log/nginx/desk.log#$3/access.log#" \
  -e "s#location = /office.json {#location = /office.json { alias $4;#" "$page/nginx.conf"
echo "}"
