# GNU parallel over ssh, for examples/fleet/run: four names of this machine, and an sshd with keys of its own. On machines of their own all
# that is left of this is: parallel --wd . -S machine1,machine2 examples/fleet/worker ::: PART..

needs parallel/parallel sshd/openssh-server ssh/openssh-client
port=18022
begin() {
    mkdir "$room/ssh"
    mkdir -p /run/sshd 2>/dev/null || :
    ssh-keygen -q -t ed25519 -N '' -f "$room/ssh/host" && ssh-keygen -q -t ed25519 -N '' -f "$room/ssh/user"
    printf '%s\n' "Port $port" 'ListenAddress 127.0.0.1' "HostKey $room/ssh/host" "AuthorizedKeysFile $room/ssh/user.pub" 'PidFile none' 'StrictModes no' \
        'UsePAM no' 'PasswordAuthentication no' 'PermitRootLogin prohibit-password' 'MaxStartups 100' >"$room/ssh/server"
    printf '%s\n' 'Host machine1 machine2 machine3 machine4' 'HostName 127.0.0.1' "Port $port" "IdentityFile $room/ssh/user" 'IdentitiesOnly yes' \
        "UserKnownHostsFile $room/ssh/known" 'StrictHostKeyChecking accept-new' 'LogLevel ERROR' >"$room/ssh/client"
    daemon "$(command -v sshd)" -D -e -f "$room/ssh/server"
    tries=0
    until ssh -F "$room/ssh/client" machine1 : 2>/dev/null; do
        tries=$((tries + 1))
        [ "$tries" -lt 50 ] || fail "sshd does not answer: $(tail -n 3 "$room/said")"
        sleep 0.1
    done
}
hand_out() { # PART..
    PARALLEL_HOME=$room/parallel parallel --will-cite --ssh "ssh -F $room/ssh/client" -S machine1,machine2,machine3,machine4 -j 1 \
        "$top/examples/fleet/worker" ::: "$@" 2>>"$room/said" || : # who was killed is seen by what is missing
}
