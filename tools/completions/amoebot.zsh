#compdef amoebot amoebot-why
# Completes the words of amoebot and amoebot-why in zsh.

case $CURRENT:$words[2] in
2:*) compadd run interleave replay check measure show sample renew rewind rounds elect tickets ;;
3:show) compadd hexagon erosion line ;;
esac
