/^(settled|gap|send| hop) /!d
