#import a
@
