"""Names of protocols, ports and types of ICMP, as /etc/protocols and /etc/services of FreeBSD and pfctl(8) have them."""
from __future__ import annotations

from typing import Dict, Optional

_PROTOCOLS = """
ip 0 hopopt 0 icmp 1 igmp 2 ggp 3 ipencap 4 st2 5 tcp 6 cbt 7 egp 8 igp 9 pup 12 udp 17 hmp 20 xns-idp 22 rdp 27 iso-tp4 29 dccp 33
idpr 35 ddp 37 ipv6 41 sdrp 42 ipv6-route 43 ipv6-frag 44 idrp 45 rsvp 46 gre 47 esp 50 ah 51 mobile 55 tlsp 56 skip 57 ipv6-icmp 58
icmp6 58 icmpv6 58 ipv6-nonxt 59 ipv6-opts 60 rspf 73 eigrp 88 vmtp 81 ospf 89 ospfigp 89 ipip 94 etherip 97 encap 98 pim 103 ipcomp 108
vrrp 112 carp 112 l2tp 115 isis 124 sctp 132 fc 133 udplite 136 mpls-in-ip 137 hip 139 shim6 140 wesp 141 rohc 142 pfsync 240
"""
_PORTS = """
tcpmux 1 echo 7 discard 9 sink 9 systat 11 users 11 daytime 13 qotd 17 chargen 19 ttytst 19 ftp-data 20 ftp 21 ssh 22 telnet 23 smtp 25
mail 25 time 37 timserver 37 nameserver 42 nicname 43 whois 43 tacacs 49 domain 53 bootps 67 dhcps 67 bootpc 68 dhcpc 68 tftp 69 gopher 70
finger 79 http 80 www 80 www-http 80 kerberos 88 kerberos-sec 88 hostname 101 iso-tsap 102 pop2 109 postoffice 109 pop3 110 sunrpc 111
rpcbind 111 portmap 111 auth 113 ident 113 tap 113 sftp 115 uucp-path 117 nntp 119 usenet 119 ntp 123 epmap 135 loc-srv 135 netbios-ns 137
netbios-dgm 138 netbios-ssn 139 imap 143 imap2 143 imap4 143 snmp 161 snmptrap 162 snmp-trap 162 xdmcp 177 bgp 179 irc 194 smux 199
imap3 220 ldap 389 svrloc 427 https 443 microsoft-ds 445 kpasswd 464 kpasswd5 464 smtps 465 submissions 465 isakmp 500 ike 500 exec 512
biff 512 comsat 512 login 513 who 513 whod 513 shell 514 cmd 514 syslog 514 printer 515 spooler 515 talk 517 ntalk 518 route 520
router 520 rip 520 ripng 521 timed 525 timeserver 525 conference 531 netnews 532 uucp 540 uucpd 540 klogin 543 kshell 544
dhcpv6-client 546 dhcpv6-server 547 afpovertcp 548 rtsp 554 nntps 563 snews 563 nntp-s 563 submission 587 ipp 631 ldp 646 ldaps 636
kerberos-adm 749 domain-s 853 rsync 873 ftps-data 989 ftps 990 telnets 992 imaps 993 ircs 994 pop3s 995 spop3 995 socks 1080 openvpn 1194
lotusnote 1352 ms-sql-s 1433 ms-sql-m 1434 ingreslock 1524 l2f 1701 l2tp 1701 pptp 1723 radius 1812 radacct 1813 radius-acct 1813
ssdp 1900 hsrp 1985 cisco-sccp 2000 nfsd 2049 nfs 2049 cvspserver 2401 iscsi-target 3260 squid 3128 mysql 3306 rdp 3389 ms-wbt-server 3389
stun 3478 svn 3690 nat-stun-port 3478 ipsec-msft 4500 ipsec-nat-t 4500 sae-urn 4500 rwhois 4321 vxlan 4789 sip 5060 sip-tls 5061 sips 5061
xmpp-client 5222 xmpp-server 5269 mdns 5353 postgresql 5432 amqps 5671 amqp 5672 rfb 5900 vnc-server 5900 x11 6000 ircd 6667
ftp-proxy 8021 http-alt 8080 webcache 8080 jetdirect 9100 pdl-datastream 9100 git 9418 amanda 10080 zabbix-agent 10050
zabbix-trapper 10051
"""
_ICMP = """
echorep 0 unreach 3 squench 4 redir 5 althost 6 echoreq 8 routeradv 9 routersol 10 timex 11 paramprob 12 timereq 13 timerep 14 inforeq 15
inforep 16 maskreq 17 maskrep 18 trace 30 dataconv 31 mobredir 32 ipv6-where 33 ipv6-here 34 mobregreq 35 mobregrep 36 skip 39 photuris 40
"""
_ICMP6 = """
unreach 1 toobig 2 timex 3 paramprob 4 echoreq 128 echorep 129 groupqry 130 listqry 130 grouprep 131 listenrep 131 groupterm 132
listendone 132 routersol 133 routeradv 134 neighbrsol 135 neighbradv 136 redir 137 routrrenum 138 wrureq 139 fqdnreq 139 niqry 139
wrurep 140 fqdnrep 140 nirep 140 mtraceresp 200 mtrace 201
"""
GREATEST_PORT = 65535
TCP, UDP, ICMP, ICMP6 = 6, 17, 1, 58
WITH_PORTS = (TCP, UDP)


def _numbers(text: str) -> Dict[str, int]:
    words = text.split()
    return dict(zip(words[::2], map(int, words[1::2])))


_PROTOCOL_NUMBERS, _PORT_NUMBERS = _numbers(_PROTOCOLS), _numbers(_PORTS)
_ICMP_NUMBERS = {4: _numbers(_ICMP), 6: _numbers(_ICMP6)}


def number_of(text: str, most: int) -> Optional[int]:
    """A number in decimal digits, up to the greatest; None for any other word."""
    return int(text) if text.isascii() and text.isdigit() and len(text) <= 10 and int(text) <= most else None


def protocol_number(text: str) -> Optional[int]:
    found = number_of(text, 255)
    return _PROTOCOL_NUMBERS.get(text.lower()) if found is None else found


def port_number(text: str) -> Optional[int]:
    found = number_of(text, GREATEST_PORT)
    return _PORT_NUMBERS.get(text) if found is None else found


def icmp_number(version: int, text: str) -> Optional[int]:
    found = number_of(text, 255)
    return _ICMP_NUMBERS[version].get(text) if found is None else found
