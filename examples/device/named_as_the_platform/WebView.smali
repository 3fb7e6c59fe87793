# Is never loaded: a device takes the platform's class of this name.
.class public Landroid/webkit/WebView;
.super Landroid/view/View;

.method public constructor <init>(Landroid/content/Context;)V
    .registers 2
    invoke-direct {p0, p1}, Landroid/view/View;-><init>(Landroid/content/Context;)V
    return-void
.end method

.method public loadUrl(Ljava/lang/String;)V
    .registers 2
    return-void
.end method
