#import <Foundation/Foundation.h>
  #  include "a.h"
#pragma mark - Numbers
#	pragma  mark
#importx is skipped as well // too
/* a comment
   of two lines * / ** */
int main(void) { // to the end of the line "
    printf("%d %d %d", 0x1F, 0XaB, 0x7fffffff); /* one *//* two */
    printf(" %c%c%c%d%d%d", 'a', '\n', '"', '\'', '\\', '\0'); ///* no comment begins here
    return 'A' /**/ - 0x41; //
}
