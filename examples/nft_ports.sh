#!/usr/bin/env bash
# nft_ports.sh LINK LANEPORT LOW HIGH: nftables forwards what comes by LINK to ports LOW to HIGH, as the lane at LANEPORT tells it.
# It asks each port again ten seconds after the last round. What it told nftables ends a minute later, while a port rests for two.
link=${1:?} lane=${2:?} low=${3:?} high=${4:?}
nft -f - <<EOF || exit
add table ip pcp_nat
delete table ip pcp_nat
table ip pcp_nat {
  map ports { type inet_proto . inet_service : ipv4_addr . inet_service; flags timeout; }
  chain inward {
    type nat hook prerouting priority -100
    iifname "$link" dnat ip to meta l4proto . th dport map @ports
  }
}
EOF
while sleep 10; do
  {
    echo 'flush map ip pcp_nat ports'
    for protocol in 6 17; do
      for ((port = low; port <= high; port++)); do
        exec 3<>"/dev/udp/127.0.0.1/$lane"
        printf 'look %s %s 198.51.100.7 40000' "$protocol" "$port" >&3
        read -r told host _ inside < <(timeout 1 dd bs=2048 count=1 <&3 2>/dev/null)
        [ "$told" = owner ] && echo "add element ip pcp_nat ports { $protocol . $port timeout 60s : $host . $inside }"
      done
    done
  } | nft -f -
done
